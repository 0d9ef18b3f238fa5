"""What several programs use: the language's lines, the program as a child, who asks."""
