class Tank { int level; int level; }
class Cistern extends Tank { int level; }
