class Cubes {
  static int sum;
  public static void main(String[] args) {
    Shape flat = new Shape();
    flat.side = 3;
    sum = flat.side;
    Shape solid = new Cube();
    solid.side = 2;
    sum = sum + solid.area();
    System.out.println(sum);
  }
}
class Shape {
  int side;
  int area() {
    return side * side;
  }
}
class Cube extends Shape {
  int area() {
    return 6 * super.area();
  }
}
