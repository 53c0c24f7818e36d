class Port { int port; }
