; No word, since 8000 lies on no page.
