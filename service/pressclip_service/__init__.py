"""What stands around the engine: a journal for one machine (`keep`) and a grid of engines over Redis (`grid`)."""

from .place import VERSION as VERSION
