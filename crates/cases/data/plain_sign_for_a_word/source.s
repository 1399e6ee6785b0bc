text
 = "text"
