import java.io.IOException;
import java.nio.file.Files;
import java.nio.file.Path;
import java.util.ArrayList;
import java.util.List;

/** Brings many programs in: a line OUT MAP MAIN FILE.. with tabs between for each; what stands in the way goes to OUT.told. */
public final class Batch {
    private Batch() {
    }

    public static void main(String[] words) throws IOException {
        for (String line : Files.readAllLines(Path.of(words[1]))) {
            List<String> job = new ArrayList<>(List.of(line.split("\t")));
            FromJava.Result result;
            try {
                result = FromJava.bring(job.subList(3, job.size()), Path.of(words[0]), job.get(2));
            } catch (RuntimeException fault) {
                result = new FromJava.Result();
                result.told = "the tool met " + fault + " at " + fault.getStackTrace()[0] + "\n";
            }
            if (result.text != null) {
                Files.writeString(Path.of(job.get(0)), result.text);
                Files.writeString(Path.of(job.get(1)), result.map);
            }
            Files.writeString(Path.of(job.get(0) + ".told"), result.told);
        }
    }
}
