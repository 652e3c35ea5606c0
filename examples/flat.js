start();
print(1);

add(total, 42); print(total);
add(
  total,
  1
);
