public class Shapes {
  public static void main(String[] args) {
    Square square = new Square();
    square.name = "square";
    square.side = 3;
    Cube cube = new Cube();
    cube.name = "cube";
    cube.side = 2;
    Named[] all = new Named[2];
    all[0] = square;
    all[1] = cube;
    for (int i = 0; i < all.length; i++) {
      System.out.println(all[i].text());
    }
    Named first = all[0];
    System.out.println(first instanceof Cube);
    Cube wrong = (Cube) first;
    System.out.println("never");
  }
}
interface Shape {
  int area();
}
abstract class Named implements Shape {
  String name;
  String text() { return name + " of area " + this.area(); }
}
class Square extends Named {
  int side;
  public int area() { return side * side; }
}
class Cube extends Square {
  public int area() { return 6 * super.area(); }
  String text() { return "solid " + super.text(); }
}
