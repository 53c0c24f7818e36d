public @interface SCJAllowed {
    Level value() default Level.LEVEL_0;

    boolean members() default false;
}

enum Level {
    LEVEL_0,
    LEVEL_1,
    LEVEL_2,
    SUPPORT,
    INFRASTRUCTURE,
    HIDDEN
}
