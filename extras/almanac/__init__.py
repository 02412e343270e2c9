"""What almanac-ics, almanac-page and explain share: names, lines and texts, a year's questions, and facts in words."""
