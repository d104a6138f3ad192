"""What the formats have at this time."""

# Whether jobs have priorities: `submit` and `put` take a last word from 1 to 255, a Work may be of kind 0b.
HAS_PRIORITIES = True
