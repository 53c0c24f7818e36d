class Tank { }
