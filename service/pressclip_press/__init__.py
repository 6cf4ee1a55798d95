"""The dialect of press desks, over the engine: queries as desks write them, and articles prepared for them."""
