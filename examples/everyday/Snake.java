import java.util.LinkedList;

/** A snake that eats its way over a small field, moved by a string of keys. */
public class Snake {
    private static final class Cell {
        final int x, y;

        private Cell(int x, int y) {
            this.x = x;
            this.y = y;
        }

        Cell moved(char key) {
            int dx = 0, dy = 0;
            switch (key) {
                case 'w': dy--; break;
                case 's': dy++; break;
                case 'a': dx--; break;
                case 'd': dx++; break;
                default: return null;
            }
            return new Cell(x + dx, y + dy);
        }

        @Override
        public boolean equals(Object o) {
            if (!(o instanceof Cell)) return false;
            Cell c = (Cell) o;
            return x == c.x && y == c.y;
        }

        @Override
        public int hashCode() {
            return 31 * x + y;
        }
    }

    private final int width, height;
    private final LinkedList<Cell> body = new LinkedList<>();
    private Cell food;
    private int eaten, seed = 7;
    private boolean over;

    Snake(int width, int height) {
        this.width = width;
        this.height = height;
        body.add(new Cell(width / 2, height / 2));
        place();
    }

    private void place() {
        do {
            seed = (seed * 31 + 11) % 997;
            food = new Cell(seed % width, seed / width % height);
        } while (body.contains(food));
    }

    void turn(char key) {
        Cell next = body.getFirst().moved(key);
        if (over || next == null) return;
        if (next.x < 0 || next.y < 0 || next.x >= width || next.y >= height || body.contains(next)) {
            over = true;
            return;
        }
        body.addFirst(next);
        if (next.equals(food)) {
            eaten++;
            place();
        } else {
            body.removeLast();
        }
    }

    void draw() {
        for (int y = 0; y < height; y++) {
            StringBuilder line = new StringBuilder();
            for (int x = 0; x < width; x++) {
                Cell c = new Cell(x, y);
                line.append(c.equals(body.peekFirst()) ? '@' : body.contains(c) ? 'o' : c.equals(food) ? '*' : '.');
            }
            System.out.println(line);
        }
    }

    public static void main(String[] args) {
        Snake snake = new Snake(6, 4);
        String keys = "ddwaaaasssddddwwwaaaqsd" + (args.length > 0 ? args[0] : "");
        for (char key : keys.toCharArray()) snake.turn(key);
        snake.draw();
        System.out.println(snake.eaten + " eaten, length " + snake.body.size() + (snake.over ? ", over" : ""));
    }
}
