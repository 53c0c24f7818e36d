public @interface RunsIn {
    String value();
}
