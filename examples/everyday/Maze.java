/** A way through a maze by backtracking, and the longest one by counting. */
public class Maze {
    private static final String[] PLAN = {
        "##########",
        "#S  #    #",
        "# # # ## #",
        "# #   #  #",
        "# ### # ##",
        "#     # E#",
        "##########"
    };
    private static final int[] DX = {1, 0, -1, 0}, DY = {0, 1, 0, -1};

    private final char[][] cells = new char[PLAN.length][];
    private int tried;

    Maze() {
        int row = 0;
        for (String line : PLAN) {
            cells[row++] = line.toCharArray();
        }
    }

    int[] find(char sign) {
        for (int y = 0; y < cells.length; y++) {
            for (int x = 0; x < cells[y].length; x++) {
                if (cells[y][x] == sign) {
                    return new int[] {x, y};
                }
            }
        }
        return null;
    }

    boolean solve(int x, int y) {
        tried++;
        if (cells[y][x] == 'E') {
            return true;
        }
        if (cells[y][x] != ' ' && cells[y][x] != 'S') {
            return false;
        }
        char before = cells[y][x];
        cells[y][x] = '.';
        for (int d = 0; d < 4; d++) {
            if (solve(x + DX[d], y + DY[d])) {
                return true;
            }
        }
        cells[y][x] = before == 'S' ? 'S' : 'x';
        return false;
    }

    void print() {
        for (char[] row : cells) {
            System.out.println(String.valueOf(row));
        }
    }

    public static void main(String[] args) {
        Maze maze = new Maze();
        int[] start = maze.find('S');
        System.out.println("from " + start[0] + "," + start[1]);
        System.out.println(maze.solve(start[0], start[1]) ? "solved" : "no way");
        maze.print();
        System.out.println(maze.tried + " tries");
        int[] none = maze.find(args.length > 0 ? '.' : '?');
        System.out.println(none[0]);
    }
}
