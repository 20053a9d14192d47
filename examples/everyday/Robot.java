import java.util.LinkedHashMap;
import java.util.Map;

/** A robot on a grid that takes commands from strings. */
public class Robot {
    enum Direction {
        NORTH(0, 1), EAST(1, 0), SOUTH(0, -1), WEST(-1, 0);

        private final int dx, dy;

        Direction(int dx, int dy) {
            this.dx = dx;
            this.dy = dy;
        }

        Direction right() {
            return values()[(ordinal() + 1) % values().length];
        }

        Direction left() {
            Direction at = this;
            for (int i = 0; i < 3; i++) at = at.right();
            return at;
        }
    }

    @FunctionalInterface
    interface Command {
        void run(int n);
    }

    private int x, y;
    private Direction direction = Direction.NORTH;
    private final Map<String, Command> commands = new LinkedHashMap<>();
    private String trail = "";

    Robot() {
        commands.put("go", this::go);
        commands.put("left", n -> turn(n, false));
        commands.put("right", n -> turn(n, true));
        commands.put("home", n -> {
            x = n;
            y = n;
            trail += "H";
        });
    }

    private void go(int n) {
        while (n-- > 0) {
            x += direction.dx;
            y += direction.dy;
            trail += direction.name().charAt(0);
        }
    }

    private void turn(int n, boolean right) {
        for (int i = 0; i < n; i++) direction = right ? direction.right() : direction.left();
    }

    void execute(String program) {
        for (String line : program.split(";")) {
            String[] words = line.trim().split(" ");
            Command command = commands.get(words[0]);
            if (command == null) {
                System.out.println("unknown: " + words[0]);
                continue;
            }
            int n = words.length > 1 ? Integer.parseInt(words[1]) : 1;
            command.run(n);
        }
    }

    @Override
    public String toString() {
        return "(" + x + "," + y + ") " + direction + " " + trail;
    }

    public static void main(String[] args) {
        Robot robot = new Robot();
        robot.execute("go 3; right; go 2;left 2; go; jump 4");
        System.out.println(robot);
        for (String arg : args) robot.execute(arg);
        robot.execute("home 0; right 6; go 2");
        System.out.println(robot + " " + robot.commands.keySet());
        switch (robot.direction) {
            case NORTH, SOUTH -> System.out.println("up or down");
            case EAST -> System.out.println("east");
            default -> System.out.println("west");
        }
    }
}
