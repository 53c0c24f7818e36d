public @interface DefineScope {
    String name();
    String parent();
}
