/** Matrices of whole numbers: products, powers, determinants, a spiral. */
public class Matrix {
    private final int[][] cells;
    private final int n;

    Matrix(int[][] cells) {
        this.cells = cells;
        n = cells.length;
    }

    static Matrix identity(int n) {
        int[][] c = new int[n][n];
        for (int i = 0; i < n; i++) c[i][i] = 1;
        return new Matrix(c);
    }

    Matrix times(Matrix other) {
        int[][] c = new int[n][n];
        for (int i = 0; i < n; i++)
            for (int j = 0; j < n; j++)
                for (int k = 0; k < n; k++)
                    c[i][j] += cells[i][k] * other.cells[k][j];
        return new Matrix(c);
    }

    Matrix power(int e) {
        Matrix result = identity(n), base = this;
        while (e > 0) {
            if ((e & 1) == 1) result = result.times(base);
            base = base.times(base);
            e >>= 1;
        }
        return result;
    }

    int determinant() {
        if (n == 1) return cells[0][0];
        int sum = 0;
        for (int column = 0; column < n; column++) {
            sum += (column % 2 == 0 ? 1 : -1) * cells[0][column] * without(column).determinant();
        }
        return sum;
    }

    private Matrix without(int column) {
        int[][] c = new int[n - 1][n - 1];
        for (int i = 1; i < n; i++) {
            int to = 0;
            for (int j = 0; j < n; j++) {
                if (j == column) continue;
                c[i - 1][to++] = cells[i][j];
            }
        }
        return new Matrix(c);
    }

    String spiral() {
        StringBuilder text = new StringBuilder();
        int top = 0, bottom = n - 1, left = 0, right = n - 1;
        while (top <= bottom && left <= right) {
            for (int j = left; j <= right; j++) text.append(cells[top][j]).append(' ');
            top++;
            for (int i = top; i <= bottom; i++) text.append(cells[i][right]).append(' ');
            right--;
            if (top <= bottom) for (int j = right; j >= left; j--) text.append(cells[bottom][j]).append(' ');
            bottom--;
            if (left <= right) for (int i = bottom; i >= top; i--) text.append(cells[i][left]).append(' ');
            left++;
        }
        return text.toString().trim();
    }

    @Override
    public String toString() {
        StringBuilder text = new StringBuilder();
        for (int[] row : cells) {
            for (int j = 0; j < row.length; j++) {
                text.append(String.format("%5d", row[j]));
            }
            text.append("\n");
        }
        return text.toString();
    }

    public static void main(String[] args) {
        Matrix fibonacci = new Matrix(new int[][] {{1, 1}, {1, 0}});
        System.out.print(fibonacci.power(10));
        int[][] given = {{2, 0, 1}, {1, 3, 2}, {1, 1, 1}};
        Matrix m = new Matrix(given);
        System.out.println(m.determinant());
        System.out.print(m.times(identity(3)));
        int[][] wide = new int[4][4];
        for (int i = 0, k = 1; i < 4; i++) for (int j = 0; j < 4; j++, k++) wide[i][j] = k;
        System.out.println(new Matrix(wide).spiral());
        int[][] ragged = new int[3][];
        for (int i = 0; i < ragged.length; i++) ragged[i] = new int[i + 1];
        ragged[2][1]--;
        ragged[2][1] *= 7;
        System.out.println(ragged[2][1] + " " + ragged[1].length);
        System.out.println(m.cells[args.length + 2][0]);
    }
}
