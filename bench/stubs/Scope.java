public @interface Scope {
    String IMMORTAL = "IMMORTAL";
    String THIS = "THIS";
    String CALLER = "CALLER";
    String UNKNOWN = "UNKNOWN";

    String value();
}
