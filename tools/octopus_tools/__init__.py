"""Tools around the program octopus. No promise of the program rests on them."""

__version__ = "0.1.0"
