"""The parts of the module petsivola, which is the one to import."""
