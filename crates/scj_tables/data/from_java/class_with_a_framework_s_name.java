class Device { int port; }
