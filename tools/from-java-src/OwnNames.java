import java.util.ArrayList;
import java.util.HashMap;
import java.util.HashSet;
import java.util.List;
import java.util.Map;
import java.util.Set;
import java.util.regex.Matcher;
import java.util.regex.Pattern;
import javax.lang.model.element.NestingKind;
import javax.lang.model.element.TypeElement;

/** What classes and methods of the text are called in the sources: `Box<String>`, `Shape.area(int)`. */
final class OwnNames {
    private static final Pattern CLASS = Pattern.compile("[\u0001\u0003]([0-9]+)\u0002");
    private final World world;
    private final Map<String, Set<TypeElement>> called = new HashMap<>(); // the classes of a simple name

    OwnNames(World world) {
        this.world = world;
        for (Copy copy : world.copies) {
            if (isNamed(copy) && !copy.isLibrary) {
                called.computeIfAbsent(copy.element.getSimpleName().toString(), name -> new HashSet<>()).add(copy.element);
            }
        }
    }

    private static boolean isNamed(Copy copy) {
        return copy.element != null && copy.element.getNestingKind() != NestingKind.ANONYMOUS;
    }

    /** A class of the sources with its type arguments; one without a name has that of the text. */
    String of(Copy copy) {
        if (!isNamed(copy) || copy.tree == null) {
            return copy.name;
        }
        String name = copy.element.getSimpleName().toString();
        boolean several = called.getOrDefault(name, Set.of()).size() > (copy.isLibrary ? 0 : 1);
        if (several && copy.element.getEnclosingElement() instanceof TypeElement holder) {
            name = holder.getSimpleName() + "." + name;
        } else if (several && copy.isLibrary) {
            return copy.name;
        }
        List<String> arguments = new ArrayList<>();
        copy.env.values().forEach(one -> arguments.add(of(one)));
        return arguments.isEmpty() ? name : name + "<" + String.join(",", arguments) + ">";
    }

    String of(Ty type) {
        return switch (type.kind) {
            case CLASS -> of(type.copy);
            case ARRAY -> of(type.of) + "[]";
            default -> type.key();
        };
    }

    /** A method; the types of its parameters stand with it where another method of the class has its name. */
    String of(Copy.Method method, List<Copy.Method> all) {
        if (method.was == null) {
            return method.name;
        }
        boolean alone = all.stream().filter(other -> method.was.equals(other.was)).count() == 1;
        if (alone || method.params.isEmpty()) {
            return method.was;
        }
        List<String> types = new ArrayList<>();
        method.params.forEach(one -> types.add(typesIn(one.substring(0, one.lastIndexOf(' ')))));
        return method.was + "(" + String.join(",", types) + ")";
    }

    private String typesIn(String text) {
        Matcher found = CLASS.matcher(text);
        return found.replaceAll(one ->
            Matcher.quoteReplacement(of(world.copies.get(Integer.parseInt(one.group(1))))));
    }
}
