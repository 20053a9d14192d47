import com.sun.source.tree.CatchTree;
import com.sun.source.tree.NewClassTree;
import com.sun.source.tree.Tree;
import com.sun.source.tree.ThrowTree;
import com.sun.source.tree.TryTree;
import com.sun.source.tree.UnionTypeTree;
import java.util.ArrayDeque;
import java.util.ArrayList;
import java.util.Deque;
import java.util.List;
import javax.lang.model.element.Element;
import javax.lang.model.element.ExecutableElement;

/**
 * Exceptions. Where the sources have no `try`, a throw ends the program. Where they have one,
     what was thrown waits in a
 * static field, and it is asked for behind each call that may throw.
 */
final class Exceptions {
    private final Body body;

    Exceptions(Body body) {
        this.body = body;
    }

    private Copy thrown() {
        return body.conversions.library("Thrown");
    }

    Ex pending() {
        Copy at = thrown();
        body.program.needStaticField(at,
            (javax.lang.model.element.VariableElement) at.element.getEnclosedElements().stream()
            .filter(one -> one.getSimpleName().contentEquals("pending")).findFirst().orElseThrow());
        body.program.create(body.conversions.library("Throwable"), body);
        return Ex.active(at.staticToken() + ".pending", Ex.POST, body.conversions.library("Throwable").ty);
    }

    Ex isPending() {
        return Ex.binary(pending(), "!=", Ex.EQUAL, Ex.constant("null", Ty.NULL), Ty.BOOLEAN);
    }

    // ---- throwing

    void raise(ThrowTree tree) {
        if (!body.program.catches()) {
            stopAt(tree);
            return;
        }
        Ex value = body.exTo(tree.getExpression(), body.conversions.library("Throwable").ty);
        raise(value);
    }

    /** Throws an object. */
    void raise(Ex value) {
        body.set(pending().text, value);
        exit();
    }

    /** Throws a new object of a class of the library. */
    void raiseNew(String name, Ex message) {
        if (!body.program.catches()) {
            stop(message);
            return;
        }
        Copy copy = body.conversions.library(name);
        ExecutableElement constructor = null;
        for (Element member : copy.element.getEnclosedElements()) {
            if (member instanceof ExecutableElement one && one.getSimpleName().contentEquals("<init>")
                && one.getParameters().size() == 1
                && one.getParameters().get(0).asType().toString().equals("java.lang.String")) {
                constructor = one;
            }
        }
        raise(body.creations.made(copy, constructor, null, List.of(message), null));
    }

    /** Throws where a place is not one of an array's or a string's. */
    void checkPlace(Ex place, Ex length, boolean ofArray) {
        Ex low = Ex.binary(place, "<", Ex.COMPARE, Literals.of(0), Ty.BOOLEAN);
        Ex high = Ex.binary(place, ">=", Ex.COMPARE, length, Ty.BOOLEAN);
        Ex text = ofArray ? joined("Index ", place, " out of bounds for length ", length)
            : joined("String index out of range: ", place);
        body.emit(new St.If(Ex.binary(low, "||", Ex.OR, high, Ty.BOOLEAN), body.within(() ->
            raiseNew(ofArray ? "ArrayIndexOutOfBoundsException" : "StringIndexOutOfBoundsException", text)),
            new ArrayList<>()));
    }

    private static Ex joined(Object... parts) {
        Ex all = null;
        for (Object one : parts) {
            Ex part = one instanceof String text ? Literals.string(text) : (Ex) one;
            all = all == null ? part : Ex.binary(all, "+", Ex.SUM, part, Ty.STRING);
        }
        return all;
    }

    /** Throws where a divisor is zero. */
    void checkDivisor(Ex divisor) {
        Ex zero = Ex.binary(divisor, "==", Ex.EQUAL, Literals.of(0), Ty.BOOLEAN);
        body.emit(new St.If(zero, body.within(() -> raiseNew("ArithmeticException", Literals.string("/ by zero"))),
            new ArrayList<>()));
    }

    /** Throws where the size of a new array is below zero. */
    void checkSize(Ex size) {
        Ex low = Ex.binary(size, "<", Ex.COMPARE, Literals.of(0), Ty.BOOLEAN);
        body.emit(new St.If(low, body.within(() -> raiseNew("NegativeArraySizeException", joined("", size))),
            new ArrayList<>()));
    }

    private void stopAt(ThrowTree tree) {
        if (tree.getExpression() instanceof NewClassTree made && made.getClassBody() == null) {
            Ty type = body.tyOf(made);
            if (type.is(Ty.Kind.CLASS) && type.copy.isLibrary && body.program.known(type.copy, tree, body)) {
                List<Ex> values = new ArrayList<>();
                made.getArguments().forEach(one -> values.add(body.conversions.text(body.ex(one), one)));
                String name = type.copy.element.getQualifiedName().toString();
                Ex text = Literals.string(values.isEmpty() ? name : name + ": ");
                for (Ex value : values.subList(0, Math.min(1, values.size()))) {
                    text = value.text.startsWith("\"") && value.level == Ex.POST
                        ? new Ex(text.text.substring(0, text.text.length() - 1) + value.text.substring(1), Ex.POST,
                            Ty.STRING, true, text.reads)
                        : Ex.binary(text, "+", Ex.SUM, value, Ty.STRING);
                }
                stop(text);
                return;
            }
        }
        Ex value = body.settle(body.ex(tree.getExpression()));
        stop(body.conversions.text(value, tree));
    }

    private void stop(Ex text) {
        Copy at = thrown();
        String name = body.program.needNamed(at, "stop");
        body.emit(new St.Do(at.staticToken() + "." + name + "(" + body.conversions.string(text, null).text + ")"));
        leaveOut();
    }

    /** A return where a throw ends the program, which is never reached. */
    private void leaveOut() {
        body.leave();
    }

    /** Goes to the try around, or out of the method. */
    void exit() {
        for (Body.Target target : body.targets) {
            if (target.isTry) {
                body.emit(new St.Jump(target.loop, false));
                return;
            }
        }
        if (body.isMain) {
            uncaught();
        }
        body.leave();
    }

    /** What `main` does with what nobody caught. */
    private void uncaught() {
        Copy at = thrown();
        String name = body.program.needNamed(at, "stop");
        Ex text = body.conversions.text(pending(), null);
        body.emit(new St.Do(at.staticToken() + "." + name + "(" + text.text + ")"));
    }

    boolean throwsOn(ExecutableElement method) {
        return body.program.catches() && body.program.throwing.mayThrow(method);
    }

    /** Asks behind a call whether something was thrown. */
    void after(ExecutableElement method) {
        if (throwsOn(method)) {
            body.emit(new St.If(isPending(), body.within(this::exit), new ArrayList<>()));
        }
    }

    // ---- leaving

    /** A return, after the last parts of all that is left. */
    void leaveAll(Ex value, Tree tree) {
        Ex kept = value;
        if (value != null && body.targets.stream().anyMatch(target -> target.last != null)) {
            kept = value.pure && value.reads.isEmpty() ? value : body.spill(value);
        }
        Ex given = kept;
        runLast(null, () -> body.emit(new St.Return(given == null ? null : given.text)));
    }

    void leaveTo(Body.Target target, Runnable then) {
        runLast(target, then);
    }

    private void runLast(Body.Target until, Runnable then) {
        Deque<Body.Target> saved = body.targets;
        body.targets = new ArrayDeque<>(saved);
        while (!body.targets.isEmpty() && body.targets.peek() != until) {
            Body.Target left = body.targets.pop();
            if (left.last != null) {
                left.last.run();
            }
        }
        then.run();
        body.targets = saved;
    }

    // ---- try

    Body.Target region(Runnable last) {
        Body.Target target = new Body.Target();
        target.loop = new St.Loop();
        target.loop.at = body.place;
        target.isTry = true;
        target.last = last;
        return target;
    }

    void tried(TryTree tree) {
        if (tree.getFinallyBlock() == null) {
            if (tree.getCatches().isEmpty()) {
                body.emit(new St.Block(body.scoped(() -> new Resources(body).within(tree, 0))));
            } else {
                withCatches(tree);
            }
            return;
        }
        Runnable last = () -> body.emit(new St.Block(body.scoped(() ->
            tree.getFinallyBlock().getStatements().forEach(body::statement))));
        Body.Target region = region(last);
        body.targets.push(region);
        List<St> made = body.within(() -> withCatches(tree));
        body.targets.pop();
        once(region, made);
        Ty type = body.conversions.library("Throwable").ty;
        String kept = body.fresh("thrown");
        body.emit(new St.Let(type.text(), kept, pending().text));
        body.set(pending().text, Ex.constant("null", Ty.NULL));
        last.run();
        Ex again = Ex.binary(Ex.local(kept, type), "!=", Ex.EQUAL, Ex.constant("null", Ty.NULL), Ty.BOOLEAN);
        body.emit(new St.If(again, body.within(() -> raise(Ex.local(kept, type))), new ArrayList<>()));
    }

    /** The statements once, in a loop that a throw can leave; without the loop where none does. */
    void once(Body.Target region, List<St> made) {
        if (!Finish.leaves(made, region.loop)) {
            body.emit(new St.Block(made));
            return;
        }
        St last = new St.Jump(region.loop, false);
        last.at = body.place;
        made.add(last);
        region.loop.body = made;
        body.emit(region.loop);
    }

    private void withCatches(TryTree tree) {
        Body.Target region = region(null);
        body.targets.push(region);
        List<St> made = body.scoped(() -> new Resources(body).within(tree, 0));
        body.targets.pop();
        once(region, made);
        if (tree.getCatches().isEmpty()) {
            return;
        }
        List<St> chain = body.within(this::exit);
        for (int k = tree.getCatches().size() - 1; k >= 0; k--) {
            chain = new ArrayList<>(List.of(caught(tree.getCatches().get(k), chain)));
        }
        body.emit(new St.If(isPending(), chain, new ArrayList<>()));
    }

    private St caught(CatchTree tree, List<St> otherwise) {
        Place saved = body.place;
        body.place = body.placeOf(tree);
        Element variable = body.elementOf(tree.getParameter());
        List<Tree> types = new ArrayList<>();
        if (tree.getParameter().getType() instanceof UnionTypeTree union) {
            types.addAll(union.getTypeAlternatives());
        } else {
            types.add(tree.getParameter().getType());
        }
        Ex test = null;
        Ty only = null;
        for (Tree type : types) {
            only = body.tyOf(type);
            body.program.known(only.copy, type, body);
            Ex one = body.conversions.instanceOf(pending(), only, type);
            test = test == null ? one : Ex.binary(test, "||", Ex.OR, one, Ty.BOOLEAN);
        }
        Ty type = types.size() == 1 ? only : body.conversions.library("Throwable").ty;
        List<St> then = body.scoped(() -> {
            String name = body.declare(variable, type);
            body.emit(new St.Let(type.text(), name, body.conversions.cast(pending(), type, tree).text));
            body.set(pending().text, Ex.constant("null", Ty.NULL));
            tree.getBlock().getStatements().forEach(body::statement);
        });
        St made = new St.If(test, then, otherwise);
        made.at = body.place;
        body.place = saved;
        return made;
    }
}
