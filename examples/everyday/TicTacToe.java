/** Two players without a mistake: the whole game tree by minimax. */
public class TicTacToe {
    enum Mark {
        NONE('.'), X('x'), O('o');

        private final char sign;

        Mark(char sign) {
            this.sign = sign;
        }

        Mark other() {
            return this == X ? O : X;
        }

        char sign() {
            return sign;
        }
    }

    private static final int[][] LINES = {
        {0, 1, 2}, {3, 4, 5}, {6, 7, 8}, {0, 3, 6}, {1, 4, 7}, {2, 5, 8}, {0, 4, 8}, {2, 4, 6}
    };

    private final Mark[] cells = new Mark[9];
    private int looked;

    TicTacToe() {
        for (int i = 0; i < cells.length; i++) {
            cells[i] = Mark.NONE;
        }
    }

    private boolean wins(Mark mark) {
        for (int[] line : LINES) {
            if (cells[line[0]] == mark && cells[line[1]] == mark && cells[line[2]] == mark) {
                return true;
            }
        }
        return false;
    }

    private boolean isFull() {
        for (Mark cell : cells) {
            if (cell == Mark.NONE) return false;
        }
        return true;
    }

    /** 1 where the player to move wins, 0 for a draw, -1 where the other wins. */
    private int value(Mark player) {
        looked++;
        if (wins(player.other())) return -1;
        if (isFull()) return 0;
        int best = -1;
        for (int i = 0; i < 9 && best < 1; i++) {
            if (cells[i] != Mark.NONE) continue;
            cells[i] = player;
            best = Math.max(best, -value(player.other()));
            cells[i] = Mark.NONE;
        }
        return best;
    }

    private int bestMove(Mark player) {
        int move = -1, best = -2;
        for (int i = 0; i < 9; i++) {
            if (cells[i] == Mark.NONE) {
                cells[i] = player;
                int v = -value(player.other());
                cells[i] = Mark.NONE;
                if (v > best) {
                    best = v;
                    move = i;
                }
            }
        }
        return move;
    }

    void show() {
        for (int row = 0; row < 3; row++) {
            System.out.println("" + cells[3 * row].sign() + cells[3 * row + 1].sign() + cells[3 * row + 2].sign());
        }
        System.out.println();
    }

    public static void main(String[] args) {
        TicTacToe game = new TicTacToe();
        game.cells[4] = Mark.X;
        game.cells[args.length] = Mark.O;
        Mark player = Mark.X;
        while (!game.isFull() && !game.wins(player.other())) {
            game.cells[game.bestMove(player)] = player;
            game.show();
            player = player.other();
        }
        String end = game.wins(Mark.X) ? "x wins" : game.wins(Mark.O) ? "o wins" : "a draw";
        System.out.println(end + " after " + game.looked + " looks");
    }
}
