"""The lesson front end: text lessons in, records out, the bench program's lines put into words."""
