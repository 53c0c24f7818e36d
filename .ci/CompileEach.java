import java.io.File;
import java.io.IOException;
import java.io.StringWriter;
import java.nio.file.Files;
import java.nio.file.Path;
import java.util.List;
import javax.tools.JavaCompiler;
import javax.tools.StandardJavaFileManager;
import javax.tools.ToolProvider;

/**
 * Compiles each program by itself: java CompileEach.java CLASSPATH PROGRAM.. where a program is a file, or the files of a
 * folder. Prints those that aren't compiled, and ends with 1 if there are any.
 */
public class CompileEach {
    public static void main(String[] words) throws IOException {
        JavaCompiler compiler = ToolProvider.getSystemJavaCompiler();
        boolean all = true;
        for (int i = 1; i < words.length; i++) {
            String classes = Files.createTempDirectory(Path.of(words[0]), "classes").toString();
            List<String> options =
                    List.of("-proc:none", "-nowarn", "-implicit:none", "-encoding", "UTF-8", "-cp", words[0], "-d", classes);
            File[] parts = new File(words[i]).listFiles((folder, name) -> name.endsWith(".java"));
            if (parts == null) parts = new File[] {new File(words[i])};
            StringWriter told = new StringWriter();
            try (StandardJavaFileManager files = compiler.getStandardFileManager(null, null, null)) {
                if (!compiler.getTask(told, files, null, options, null, files.getJavaFileObjects(parts)).call()) {
                    System.out.println(words[i] + " isn't compiled: " + told);
                    all = false;
                }
            }
        }
        System.exit(all ? 0 : 1);
    }
}
