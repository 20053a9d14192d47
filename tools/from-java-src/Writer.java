import java.util.ArrayList;
import java.util.List;
import java.util.regex.Matcher;
import java.util.regex.Pattern;

/** Writes the classes as text, and keeps the place of each line. */
final class Writer {
    private static final Pattern TOKEN = Pattern.compile("([\u0001\u0003])([0-9]+)\u0002");
    private final Program program;
    private final Shape shape;
    private final StringBuilder text = new StringBuilder();
    final List<Place> places = new ArrayList<>(); // of each line

    Writer(Program program) {
        this.program = program;
        shape = new Shape(program);
    }

    String write() {
        for (Shape.Part part : shape.parts()) {
            if (part.isStatic()) {
                statics(part.copy(), part.name());
            } else {
                type(part.copy(), part.name(), part.both());
            }
        }
        return text.toString();
    }

    Shape shape() {
        return shape;
    }

    /** The names of classes in place of their tokens. */
    String named(String line) {
        if (line.indexOf('\u0001') < 0 && line.indexOf('\u0003') < 0) {
            return line;
        }
        Matcher found = TOKEN.matcher(line);
        StringBuilder made = new StringBuilder();
        while (found.find()) {
            Copy copy = program.world.copies.get(Integer.parseInt(found.group(2)));
            found.appendReplacement(made, Matcher.quoteReplacement(found.group(1).equals("\u0001")
                ? shape.nameOf(copy) : shape.staticNameOf(copy)));
        }
        return found.appendTail(made).toString();
    }

    private void line(int depth, String line, Place at) {
        text.append("  ".repeat(depth)).append(named(line)).append('\n');
        places.add(at);
    }

    private Place placeOf(Copy copy) {
        return copy.tree == null ? new Place("-", 1, 1) : program.world.sources.placeOf(copy.unit, copy.tree);
    }

    private void statics(Copy copy, String name) {
        line(0, "class " + name + " {", placeOf(copy));
        staticMembers(copy);
        line(0, "}", placeOf(copy));
    }

    private void staticMembers(Copy copy) {
        copy.staticFields.forEach(field -> line(1, "static " + field.type() + " " + field.name() + ";", field.at()));
        copy.staticMethods.forEach(method -> method(method, copy, false));
    }

    private void type(Copy copy, String name, boolean both) {
        boolean isInterface = shape.isInterface(copy);
        StringBuilder head = new StringBuilder(isInterface ? "interface " : shape.isAbstract(copy)
            ? "abstract class " : "class ").append(name);
        Copy above = shape.superOf(copy);
        List<Copy> interfaces = shape.interfacesOf(copy);
        if (above != null) {
            head.append(" extends ").append(above.token());
        }
        if (!interfaces.isEmpty()) {
            head.append(isInterface ? " extends " : " implements ");
            for (int k = 0; k < interfaces.size(); k++) {
                head.append(k == 0 ? "" : ", ").append(interfaces.get(k).token());
            }
        }
        line(0, head.append(" {").toString(), placeOf(copy));
        if (both) {
            copy.staticFields.forEach(field -> line(1, "static " + field.type() + " " + field.name() + ";",
                field.at()));
        }
        if (copy.holdsOuter) {
            line(1, copy.outer.token() + " " + Members.outer(copy) + ";", placeOf(copy));
        }
        copy.captured.forEach((local, type) -> line(1, type.text() + " " + Captures.name(local) + ";", placeOf(copy)));
        copy.fields.forEach(field -> line(1, field.type() + " " + field.name() + ";", field.at()));
        if (both) {
            copy.staticMethods.forEach(method -> method(method, copy, false));
        }
        copy.methods.forEach(method -> method(method, copy, isInterface));
        line(0, "}", placeOf(copy));
    }

    private void method(Copy.Method method, Copy copy, boolean inInterface) {
        String head = method.result + " " + method.name + "(" + String.join(", ", method.params) + ")";
        if (method.body == null) {
            line(1, (inInterface ? "" : method.isPublic || copy.isInterface() ? "public abstract " : "abstract ")
                + head + ";", method.at);
            return;
        }
        String words = (method.isPublic ? "public " : "") + (method.isStatic ? "static " : "");
        line(1, words + head + " {", method.at);
        list(2, method.body);
        line(1, "}", method.at);
    }

    // ---- statements

    private void list(int depth, List<St> list) {
        list.forEach(one -> statement(depth, one));
    }

    private void statement(int depth, St one) {
        if (one instanceof St.Let let) {
            line(depth, let.type + " " + let.name + (let.value == null ? "" : " = " + let.value) + ";", one.at);
        } else if (one instanceof St.Set_ set) {
            line(depth, set.text() + ";", one.at);
        } else if (one instanceof St.Do call) {
            line(depth, call.text + ";", one.at);
        } else if (one instanceof St.Return back) {
            line(depth, back.value == null ? "return;" : "return " + back.value + ";", one.at);
        } else if (one instanceof St.Jump jump) {
            line(depth, jump.goesOn ? "continue;" : "break;", one.at);
        } else if (one instanceof St.If choice) {
            choice(depth, choice, "");
        } else if (one instanceof St.Block block) {
            block(depth, block);
        } else if (one instanceof St.Loop loop) {
            loop(depth, loop);
        }
    }

    private void block(int depth, St.Block block) {
        if (block.body.isEmpty()) {
            return;
        }
        line(depth, "{", block.at);
        list(depth + 1, block.body);
        line(depth, "}", block.at);
    }

    private void choice(int depth, St.If choice, String before) {
        boolean turned = choice.then.isEmpty() && !choice.other.isEmpty();
        List<St> then = turned ? choice.other : choice.then;
        List<St> other = turned ? choice.then : choice.other;
        line(depth, before + "if (" + (turned ? choice.test.not() : choice.test).text + ") {", choice.at);
        list(depth + 1, then);
        if (other.size() == 1 && other.get(0) instanceof St.If next) {
            choice(depth, next, "} else ");
            return;
        }
        if (!other.isEmpty()) {
            line(depth, "} else {", choice.at);
            list(depth + 1, other);
        }
        line(depth, "}", choice.at);
    }

    private void loop(int depth, St.Loop loop) {
        String test = loop.test == null ? "true" : loop.test.text;
        if (loop.first == null && loop.next == null) {
            line(depth, "while (" + test + ") {", loop.at);
        } else {
            String first = loop.first instanceof St.Let let ? let.type + " " + let.name + " = " + let.value
                : loop.first instanceof St.Set_ set ? set.target + " = " + set.value : "";
            String next = loop.next == null ? "" : loop.next.text();
            line(depth, "for (" + first + ";" + (loop.test == null ? "" : " " + test) + ";"
                + (next.isEmpty() ? "" : " " + next) + ") {", loop.at);
        }
        list(depth + 1, loop.body);
        line(depth, "}", loop.at);
    }
}
