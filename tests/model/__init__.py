"""The language of commands, written anew from its description alone: what is read, what is shown, what expressions do to goals, what is made and refused, and what
each command reads. All but `new_basic_type_definition`. Slow, and so short that a reader can believe it."""
