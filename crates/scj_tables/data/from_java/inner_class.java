class Tank { class Valve { } }
