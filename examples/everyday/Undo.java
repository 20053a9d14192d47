import java.util.ArrayDeque;
import java.util.Deque;

/** An editor with undo and redo: commands as classes, abstract and anonymous. */
public class Undo {
    private final StringBuilder text = new StringBuilder();
    private final Deque<Command> done = new ArrayDeque<>(), undone = new ArrayDeque<>();

    private abstract class Command {
        private final String label;

        Command(String label) {
            this.label = label;
        }

        abstract void run();

        abstract void back();

        public String toString() {
            return "<" + label + ">";
        }
    }

    private class Insert extends Command {
        private final int at;
        private final String what;

        Insert(int at, String what) {
            super("insert " + what);
            this.at = at;
            this.what = what;
        }

        void run() {
            text.insert(at, what);
        }

        void back() {
            text.delete(at, at + what.length());
        }
    }

    private Command upper() {
        return new Command("upper") {
            private String before;

            void run() {
                before = text.toString();
                replace(before.toUpperCase());
            }

            void back() {
                replace(before);
            }
        };
    }

    private void replace(String by) {
        text.setLength(0);
        text.append(by);
    }

    void execute(Command command) {
        command.run();
        done.push(command);
        undone.clear();
    }

    boolean undo() {
        if (done.isEmpty()) return false;
        Command command = done.pop();
        command.back();
        undone.push(command);
        return true;
    }

    boolean redo() {
        if (undone.isEmpty()) return false;
        Command command = undone.pop();
        command.run();
        done.push(command);
        return true;
    }

    void show() {
        System.out.println("'" + text + "' " + done + " " + undone.size());
    }

    public static void main(String[] args) {
        Undo editor = new Undo();
        editor.execute(editor.new Insert(0, "hello"));
        editor.execute(editor.new Insert(5, " world"));
        editor.show();
        editor.execute(editor.upper());
        editor.show();
        System.out.println(editor.undo() + " " + editor.undo());
        editor.show();
        editor.redo();
        editor.show();
        for (String arg : args) editor.execute(editor.new Insert(editor.text.length(), "," + arg));
        while (editor.undo()) ;
        editor.show();
        System.out.println(editor.redo() && editor.redo() && editor.redo());
    }
}
