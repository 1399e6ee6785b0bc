; No word: the fetch is refused.
