import com.google.api.client.googleapis.json.GoogleJsonResponseException;
import com.google.api.client.http.HttpRequestInitializer;
import com.google.api.client.http.javanet.NetHttpTransport;
import com.google.api.client.json.gson.GsonFactory;
import com.google.api.services.sheets.v4.Sheets;
import com.google.api.services.sheets.v4.model.AddProtectedRangeRequest;
import com.google.api.services.sheets.v4.model.BatchUpdateSpreadsheetRequest;
import com.google.api.services.sheets.v4.model.GridRange;
import com.google.api.services.sheets.v4.model.ProtectedRange;
import com.google.api.services.sheets.v4.model.Request;
import com.google.api.services.sheets.v4.model.Spreadsheet;
import com.google.api.services.sheets.v4.model.SpreadsheetProperties;
import com.google.api.services.sheets.v4.model.ValueRange;
import java.util.List;

/**
 * Google's client for Java with this server; scores_java.sh compiles and runs it. What to set: setRootUrl;
 * setDisableGZipContent(true) for each call, since the server takes no compressed bodies; and a token, which without a
 * file of users is the user's name.
 */
public class Scores {
    /** The calls of the API, made by the user of a token. */
    static Sheets service(String base, String token) {
        HttpRequestInitializer user = request -> request.getHeaders().setAuthorization("Bearer " + token);
        return new Sheets.Builder(new NetHttpTransport(), GsonFactory.getDefaultInstance(), user)
                .setRootUrl(base + "/")
                .setApplicationName("scores")
                .setGoogleClientRequestInitializer(call -> call.setDisableGZipContent(true))
                .build();
    }

    /** Prints what was answered, and ends the program where it isn't what is wanted. */
    static void show(String name, Object got, String wanted) {
        System.out.println(name + ": " + got);
        if (!String.valueOf(got).equals(wanted)) {
            System.err.println("wanted: " + wanted);
            System.exit(1);
        }
    }

    public static void main(String[] words) throws Exception {
        String base = words.length > 0 ? words[0] : "http://127.0.0.1:8080";
        Sheets ada = service(base, "ada");
        Sheets bo = service(base, "bo");
        Spreadsheet scores = new Spreadsheet().setProperties(new SpreadsheetProperties().setTitle("Scores"));
        String book = ada.spreadsheets().create(scores).execute().getSpreadsheetId();

        ValueRange rows = new ValueRange().setValues(List.of(List.of("Ada", 1, 12), List.of("Bo", 2, "=C1-3")));
        String written = ada.spreadsheets().values().append(book, "Sheet1!A:C", rows)
                .setValueInputOption("USER_ENTERED").execute().getUpdates().getUpdatedRange();
        show("written", written, "Sheet1!A1:C2");

        ValueRange read = ada.spreadsheets().values().get(book, "Sheet1!A:C").execute();
        show("read", read.getValues(), "[[Ada, 1, 12], [Bo, 2, 9]]");

        ProtectedRange header = new ProtectedRange().setRange(new GridRange().setSheetId(0).setEndRowIndex(1));
        Request protect = new Request().setAddProtectedRange(new AddProtectedRangeRequest().setProtectedRange(header));
        BatchUpdateSpreadsheetRequest batch = new BatchUpdateSpreadsheetRequest().setRequests(List.of(protect));
        show("protected range", ada.spreadsheets().batchUpdate(book, batch).execute().getReplies().get(0)
                .getAddProtectedRange().getProtectedRange().getProtectedRangeId(), "1");

        try {
            ValueRange name = new ValueRange().setValues(List.of(List.of("Bo")));
            bo.spreadsheets().values().update(book, "Sheet1!A1", name).setValueInputOption("RAW").execute();
            show("bo is refused", "none", "403 Protected 1");
        } catch (GoogleJsonResponseException refused) {
            String refusal = refused.getStatusCode() + " " + refused.getDetails().getMessage();
            show("bo is refused", refusal, "403 Protected 1");
        }
    }
}
