public @interface SCJRestricted {
    Phase[] value() default {};

    boolean mayAllocate() default true;

    boolean maySelfSuspend() default true;
}

enum Phase {
    STARTUP,
    INITIALIZATION,
    RUN,
    CLEANUP,
    ALL
}
