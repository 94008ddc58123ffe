"""A course: exercises as files, what students sent, and a table of what is proved (docs/COURSES.md)."""
