"""What takes metrics out of a process: `otlp`, `pages` and `folder`."""
