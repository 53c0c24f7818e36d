enum Mode { OFF, ON }
