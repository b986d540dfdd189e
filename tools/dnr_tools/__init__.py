"""What the tools for who keeps lists share. What a filter or a rule says is judged by the built program alone."""
