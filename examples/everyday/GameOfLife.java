import java.util.Arrays;

/** Conway's game of life on a torus. */
public class GameOfLife {
    private boolean[][] cells;
    private final int rows, columns;
    private int generation;

    GameOfLife(int rows, int columns) {
        this.rows = rows;
        this.columns = columns;
        cells = new boolean[rows][columns];
    }

    void set(int row, int column) {
        cells[row][column] = true;
    }

    private int neighbours(int row, int column) {
        int count = 0;
        for (int dr = -1; dr <= 1; dr++) {
            for (int dc = -1; dc <= 1; dc++) {
                if (dr == 0 && dc == 0) {
                    continue;
                }
                int r = (row + dr + rows) % rows, c = (column + dc + columns) % columns;
                count += cells[r][c] ? 1 : 0;
            }
        }
        return count;
    }

    void step() {
        boolean[][] next = new boolean[rows][columns];
        for (int r = 0; r < rows; r++) {
            for (int c = 0; c < columns; c++) {
                int n = neighbours(r, c);
                next[r][c] = n == 3 || cells[r][c] && n == 2;
            }
        }
        cells = next;
        generation++;
    }

    boolean isEmpty() {
        outer:
        for (boolean[] row : cells) {
            for (boolean cell : row) {
                if (cell) {
                    return false;
                }
                if (row.length > 100) {
                    continue outer;
                }
            }
        }
        return true;
    }

    void print() {
        System.out.println("generation " + generation);
        char[] line = new char[columns];
        for (boolean[] row : cells) {
            Arrays.fill(line, '.');
            for (int c = 0; c < columns; c++) {
                if (row[c]) line[c] = '#';
            }
            System.out.println(new StringBuilder().append(line));
        }
    }

    public static void main(String[] args) {
        GameOfLife life = new GameOfLife(6, 8);
        int[][] glider = {{0, 1}, {1, 2}, {2, 0}, {2, 1}, {2, 2}};
        for (int[] cell : glider) {
            life.set(cell[0], cell[1]);
        }
        life.print();
        int rounds = 4 + args.length;
        do {
            life.step();
        } while (--rounds > 0);
        life.print();
        System.out.println(life.isEmpty());
    }
}
