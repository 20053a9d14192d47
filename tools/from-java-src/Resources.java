import com.sun.source.tree.ExpressionTree;
import com.sun.source.tree.Tree;
import com.sun.source.tree.TryTree;
import com.sun.source.tree.VariableTree;
import java.util.ArrayList;
import java.util.List;
import javax.lang.model.element.ExecutableElement;
import javax.lang.model.element.TypeElement;
import javax.lang.model.util.ElementFilter;

/** `try` with resources: each is closed behind what stands within, and what its `close` throws is kept beside what was
    thrown before. */
final class Resources {
    private final Body body;

    Resources(Body body) {
        this.body = body;
    }

    /** The statements of a try, within its resources from one on. */
    void within(TryTree tree, int number) {
        if (number == tree.getResources().size()) {
            tree.getBlock().getStatements().forEach(body::statement);
            return;
        }
        Ex opened = opened(tree.getResources().get(number));
        if (!opened.type.is(Ty.Kind.CLASS)) {
            body.obstacle(tree, "try with resources", "what is opened is not known here");
            return;
        }
        Runnable close = () -> body.emit(new St.If(Ex.binary(opened, "!=", Ex.EQUAL, Ex.constant("null", Ty.NULL),
            Ty.BOOLEAN), body.within(() -> close(opened, tree)), new ArrayList<>()));
        Body.Target region = body.exceptions.region(close);
        body.targets.push(region);
        List<St> made = body.scoped(() -> within(tree, number + 1));
        body.targets.pop();
        body.exceptions.once(region, made);
        finish(close);
    }

    /** The local that holds what is opened. */
    private Ex opened(Tree resource) {
        if (!(resource instanceof VariableTree variable)) {
            return body.settle(body.ex((ExpressionTree) resource));
        }
        Ty type = body.tyOf(body.elementOf(variable));
        Ex value = body.exTo(variable.getInitializer(), type);
        String name = body.declare(body.elementOf(variable), type);
        body.emit(new St.Let(type.text(), name, value.text));
        return Ex.local(name, type);
    }

    private void close(Ex opened, Tree tree) {
        TypeElement element = opened.type.copy.element;
        ExecutableElement method = ElementFilter.methodsIn(body.world.sources.elements.getAllMembers(element)).stream()
            .filter(one -> one.toString().equals("close()")).findFirst().orElseThrow();
        body.calls.invoke(opened, method, List.of(), List.of(), tree, true);
    }

    /** Closes, where something may be thrown already. */
    private void finish(Runnable close) {
        Ty type = body.conversions.library("Throwable").ty;
        Ex none = Ex.constant("null", Ty.NULL);
        String kept = body.fresh("thrown");
        body.emit(new St.Let(type.text(), kept, body.exceptions.pending().text));
        body.set(body.exceptions.pending().text, none);
        Body.Target region = body.exceptions.region(null);
        body.targets.push(region);
        List<St> made = body.scoped(close);
        body.targets.pop();
        body.exceptions.once(region, made);
        Ex before = Ex.local(kept, type);
        Ex there = Ex.binary(before, "!=", Ex.EQUAL, none, Ty.BOOLEAN);
        body.emit(new St.If(there, body.within(() -> {
            String add = body.program.needNamed(type.copy, "addSuppressed");
            body.emit(new St.If(body.exceptions.isPending(), body.within(() -> body.emit(new St.Do(kept + "." + add + "("
                + body.exceptions.pending().text + ")"))), new ArrayList<>()));
            body.set(body.exceptions.pending().text, before);
        }), new ArrayList<>()));
        body.emit(new St.If(body.exceptions.isPending(), body.within(body.exceptions::exit), new ArrayList<>()));
    }
}
