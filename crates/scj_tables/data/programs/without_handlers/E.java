@DefineScope(name="M", parent="IMMORTAL") class Main extends Mission { public long missionMemorySize() { return 0; } public void initialize() { } }
