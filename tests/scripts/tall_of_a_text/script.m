x = tall('a.csv');
