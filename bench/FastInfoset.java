import com.sun.xml.fastinfoset.sax.SAXDocumentParser;
import com.sun.xml.fastinfoset.sax.SAXDocumentSerializer;
import java.io.BufferedReader;
import java.io.ByteArrayInputStream;
import java.io.ByteArrayOutputStream;
import java.io.InputStreamReader;
import java.io.OutputStream;
import java.nio.charset.StandardCharsets;
import java.nio.file.Files;
import java.nio.file.Paths;
import javax.xml.parsers.SAXParserFactory;
import org.xml.sax.Attributes;
import org.xml.sax.InputSource;
import org.xml.sax.XMLReader;
import org.xml.sax.helpers.DefaultHandler;

/**
 * The peer that reads and writes Fast Infoset. It stays alive, so that its start is not measured and the Java machine is warm, and
 * does what the lines of its standard input say, with one line of answer for each:
 *
 *   load FILE.xml FILE.fi   makes the Fast Infoset document of the XML, default settings, and keeps both; answers its bytes
 *   text FILE               puts what `read` makes into a file; answers its bytes
 *   read                    makes the lines that `exi read` prints from the Fast Infoset document, in a buffer that is given up
 *                           when it is full; answers the nanoseconds
 *   write                   makes the Fast Infoset document anew from the XML, by the JDK's parser; answers the nanoseconds
 */
public class FastInfoset {
    /** The lines of `exi read`, without the last. */
    static class Lines extends DefaultHandler {
        final OutputStream out;
        final StringBuilder line = new StringBuilder();
        final StringBuilder characters = new StringBuilder();

        Lines(OutputStream out) {
            this.out = out;
        }

        void quoted(String text) {
            line.append('"');
            int from = 0;
            for (int at = 0; at < text.length(); at++) {
                char it = text.charAt(at);
                if (it > '"' && it != '\\' || it == ' ' || it == '!') continue;
                int escape = "\\\"\n\r\t".indexOf(it);
                if (escape < 0) continue;
                line.append(text, from, at).append('\\').append("\\\"nrt".charAt(escape));
                from = at + 1;
            }
            line.append(text, from, text.length()).append('"');
        }

        void name(String kind, String uri, String local) {
            line.append(kind);
            quoted(uri);
            line.append(' ');
            quoted(local);
        }

        void ended() {
            if (characters.length() == 0) return;
            line.append("CH text ");
            quoted(characters.toString());
            line.append('\n');
            characters.setLength(0);
        }

        void give(boolean all) {
            if (!all && line.length() < 1 << 16) return;
            byte[] bytes = line.toString().getBytes(StandardCharsets.UTF_8);
            line.setLength(0);
            try {
                if (out != null) out.write(bytes);
            } catch (java.io.IOException fault) {
                throw new RuntimeException(fault);
            }
        }

        public void startDocument() {
            line.append("SD\n");
        }

        public void startElement(String uri, String local, String name, Attributes attributes) {
            ended();
            name("SE ", uri, local);
            line.append('\n');
            for (int at = 0; at < attributes.getLength(); at++) {
                name("AT ", attributes.getURI(at), attributes.getLocalName(at));
                line.append(" text ");
                quoted(attributes.getValue(at));
                line.append('\n');
            }
            give(false);
        }

        public void characters(char[] text, int from, int count) {
            characters.append(text, from, count);
        }

        public void endElement(String uri, String local, String name) {
            ended();
            line.append("EE\n");
            give(false);
        }

        public void endDocument() {
            line.append("ED\n");
            give(true);
        }
    }

    static void read(byte[] document, OutputStream out) throws Exception {
        SAXDocumentParser parser = new SAXDocumentParser();
        parser.setContentHandler(new Lines(out));
        parser.parse(new ByteArrayInputStream(document));
    }

    static void write(byte[] xml, OutputStream out) throws Exception {
        SAXDocumentSerializer serializer = new SAXDocumentSerializer();
        serializer.setOutputStream(out);
        SAXParserFactory factory = SAXParserFactory.newInstance();
        factory.setNamespaceAware(true);
        XMLReader reader = factory.newSAXParser().getXMLReader();
        reader.setContentHandler(serializer);
        reader.parse(new InputSource(new ByteArrayInputStream(xml)));
    }

    public static void main(String[] unused) throws Exception {
        BufferedReader input = new BufferedReader(new InputStreamReader(System.in, StandardCharsets.UTF_8));
        byte[] xml = {};
        byte[] document = {};
        for (String said; (said = input.readLine()) != null;) {
            String[] words = said.split(" ");
            ByteArrayOutputStream out = new ByteArrayOutputStream(document.length + 64);
            long answer;
            switch (words[0]) {
                case "load":
                    xml = Files.readAllBytes(Paths.get(words[1]));
                    write(xml, out);
                    document = out.toByteArray();
                    Files.write(Paths.get(words[2]), document);
                    answer = document.length;
                    break;
                case "text":
                    read(document, out);
                    Files.write(Paths.get(words[1]), out.toByteArray());
                    answer = out.size();
                    break;
                default:
                    boolean isRead = words[0].equals("read");
                    long before = System.nanoTime();
                    if (isRead) read(document, null);
                    else write(xml, out);
                    answer = System.nanoTime() - before;
            }
            System.out.println(answer);
        }
    }
}
