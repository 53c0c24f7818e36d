class Tank { }
class Valve { }
