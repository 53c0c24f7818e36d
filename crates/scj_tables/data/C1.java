class Tank { }
class Tank { }
class Trace { }
