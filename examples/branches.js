var total = 0;
while (total < 10) {
  total = total + 1;
  if (total < 5) print(total); else { print("five or more"); }
}
