"""What each number handed back means, for the explanations: the words are those of the one table, tools/words.py."""

import words

MEANINGS = {number: row.meaning for number, row in words.NUMBERS.items()}

LOADING = words.of_stages(words.LOADING) - {1}  # those that are placed at a record
CHECK = words.of_stages(words.CHECK)
RUN = words.of_stages(words.ENDED, words.STUCK)
OTHER_SHAPE = 16
