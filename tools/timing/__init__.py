"""What ./speed times: tasks beside other languages, ratios within the program, and operations on what is largest."""
