"""What suite/tools tries of the tools."""
