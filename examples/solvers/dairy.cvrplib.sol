Route #1: 4 5 3 6
Route #2: 1 7 2
Cost 231
