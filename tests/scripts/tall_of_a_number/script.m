x = tall(1);
