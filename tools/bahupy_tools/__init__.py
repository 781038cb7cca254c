"""What the commands of this folder share. `docs/TOOLS.md` says what each command does."""
