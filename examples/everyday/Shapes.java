import java.util.ArrayList;
import java.util.List;

/** Shapes with whole numbers: abstract classes, interfaces with default methods, instanceof patterns. */
public class Shapes {
    interface Shape {
        int area();

        default String describe() {
            return name() + " of area " + area();
        }

        String name();
    }

    interface Movable {
        void move(int dx, int dy);
    }

    static abstract class Figure implements Shape, Movable {
        protected int x, y;

        Figure(int x, int y) {
            this.x = x;
            this.y = y;
        }

        @Override
        public void move(int dx, int dy) {
            x += dx;
            y += dy;
        }

        @Override
        public String name() {
            return getClass().getSimpleName().toLowerCase() + " at " + x + "," + y;
        }
    }

    static class Rectangle extends Figure {
        final int width, height;

        Rectangle(int x, int y, int width, int height) {
            super(x, y);
            this.width = width;
            this.height = height;
        }

        @Override
        public int area() {
            return width * height;
        }
    }

    static class Square extends Rectangle {
        Square(int x, int y, int side) {
            super(x, y, side, side);
        }

        @Override
        public String describe() {
            return "regular " + super.describe();
        }
    }

    static class Triangle extends Figure {
        final int base, height;

        Triangle(int base, int height) {
            super(0, 0);
            this.base = base;
            this.height = height;
        }

        @Override
        public int area() {
            return base * height / 2;
        }
    }

    static int sides(Shape shape) {
        if (shape instanceof Square s && s.width > 0) {
            return 4 * s.width;
        }
        if (!(shape instanceof Rectangle r)) {
            return 0;
        }
        return 2 * (r.width + r.height);
    }

    public static void main(String[] args) {
        List<Shape> shapes = new ArrayList<>();
        shapes.add(new Rectangle(1, 2, 3, 4));
        shapes.add(new Square(5, 5, 2));
        shapes.add(new Triangle(6, 3));
        shapes.add(new Shape() {
            @Override
            public int area() {
                return args.length;
            }

            @Override
            public String name() {
                return "cloud";
            }
        });
        int total = 0;
        for (Shape shape : shapes) {
            if (shape instanceof Movable) {
                ((Movable) shape).move(1, -1);
            }
            System.out.println(shape.describe() + " " + sides(shape));
            total += shape.area();
        }
        System.out.println("total " + total);
    }
}
