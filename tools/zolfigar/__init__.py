"""Tools around the clearing program: days as text, what came of them in words, on a page and as an accounting journal."""
