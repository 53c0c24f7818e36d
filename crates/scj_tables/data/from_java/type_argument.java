import java.util.List;

class Tank {
  int level;
}

class Pump {
  List<Tank> tanks;
}
