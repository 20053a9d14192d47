import java.util.ArrayList;
import java.util.LinkedHashMap;
import java.util.List;
import java.util.Map;

/** The map: each line, class, member and variable of the text to its name and place in the sources, as JSON. */
final class TextMap {
    private final Program program;
    private final Writer writer;
    private final OwnNames names;
    private final Map<String, String> classes = new LinkedHashMap<>();
    private final Map<String, String> members = new LinkedHashMap<>();
    private final Map<String, String> variables = new LinkedHashMap<>();

    TextMap(Program program, Writer writer) {
        this.program = program;
        this.writer = writer;
        names = new OwnNames(program.world);
        writer.shape().parts().forEach(this::part);
    }

    private static String quoted(String text) {
        return "\"" + text.replace("\\", "\\\\").replace("\"", "\\\"") + "\"";
    }

    private static String place(Place at) {
        return at == null ? "null" : "[" + quoted(at.file()) + "," + at.line() + "," + at.column() + "]";
    }

    private static String was(String name) {
        return "\"was\":" + (name == null ? "null" : quoted(name));
    }

    private void part(Shape.Part part) {
        Copy copy = part.copy();
        String was = copy.element == null ? "lambda" : copy.element.getQualifiedName().length() == 0
            ? "anonymous" : copy.element.getQualifiedName().toString();
        Place at = copy.tree == null ? null : program.world.sources.placeOf(copy.unit, copy.tree);
        classes.put(part.name(), was(was) + ",\"said\":" + quoted(names.of(copy)) + ",\"at\":" + place(at)
            + ",\"library\":" + copy.isLibrary + ",\"static\":" + part.isStatic());
        List<Copy.Method> all = new ArrayList<>(copy.staticMethods);
        all.addAll(copy.methods);
        if (part.isStatic() || part.both()) {
            copy.staticFields.forEach(one -> field(part.name(), one));
            copy.staticMethods.forEach(one -> method(part.name(), one, all));
        }
        if (!part.isStatic()) {
            copy.captured.keySet().forEach(one -> members.put(part.name() + "." + Captures.name(one),
                was(one.getSimpleName().toString()) + ",\"at\":" + place(at)));
            copy.fields.forEach(one -> field(part.name(), one));
            copy.methods.forEach(one -> method(part.name(), one, all));
        }
    }

    private void field(String holder, Copy.Field one) {
        members.put(holder + "." + one.name(), was(one.was()) + ",\"at\":" + place(one.at()));
    }

    private void method(String holder, Copy.Method one, List<Copy.Method> all) {
        members.put(holder + "." + one.name + "()", was(one.was) + ",\"said\":" + quoted(names.of(one, all))
            + ",\"at\":" + place(one.at));
        one.locals.forEach((element, name) -> variables.put(holder + "." + one.name + "." + name,
            was(element.getSimpleName().toString())));
    }

    private static String object(Map<String, String> entries) {
        List<String> all = new ArrayList<>();
        entries.forEach((name, entry) -> all.add(quoted(name) + ":{" + entry + "}"));
        return "{" + String.join(",\n", all) + "}";
    }

    String json() {
        List<String> lines = new ArrayList<>();
        writer.places.forEach(at -> lines.add(place(at)));
        return "{\"lines\":[" + String.join(",\n", lines) + "],\n\"classes\":" + object(classes) + ",\n\"members\":"
            + object(members) + ",\n\"variables\":" + object(variables) + "}\n";
    }
}
